-- What pandoc changes in a document before it writes it as a manual page: code is bold, a narrow table of pairs is a list of tags, and headings go up by one.

-- How wide a tag may be.
local TAG_WIDTH = 26

local function text(blocks)
  return pandoc.utils.stringify(blocks)
end

local function joined(...)
  local made = pandoc.List()
  for _, part in ipairs({ ... }) do
    made:extend(type(part) == 'string' and { pandoc.Str(part) } or part)
  end
  return made
end

-- The cells of a row, each as the inlines that are in it.
local function cells(row)
  return row.cells:map(function(cell) return pandoc.utils.blocks_to_inlines(cell.contents) end)
end

-- Rows of two columns: the first as tags, where each is narrow, and otherwise before a colon.
local function pairs_of(rows)
  if not rows:find_if(function(row) return utf8.len(text(row[1])) > TAG_WIDTH end) then
    return pandoc.DefinitionList(rows:map(function(row) return { row[1], { { pandoc.Plain(row[2]) } } } end))
  end
  return pandoc.BulletList(rows:map(function(row) return { pandoc.Plain(joined(row[1], ': ', row[2])) } end))
end

-- A number and a name are one tag, where there is no heading above the number. Of more columns each is named by its heading.
local function table_of(block)
  local head, rows = cells(block.head.rows[1]), pandoc.List(block.bodies[1].body):map(cells)
  if #head == 2 then
    return pairs_of(rows)
  elseif text(head[1]) == '' then
    return pairs_of(rows:map(function(row) return { joined(row[1], ' ', { pandoc.Strong(row[2]) }), row[3] } end))
  end
  return pairs_of(rows:map(function(row)
    return { row[1], joined(head[2], ' ', row[2], ', ', head[3], ' ', row[3]) }
  end))
end

-- What a manual page would take for something else.
local ESCAPES = { ['\\'] = '\\e', ['-'] = '\\-', ['^'] = '\\[ha]', ['~'] = '\\[ti]', ["'"] = '\\[aq]', ['`'] = '\\[ga]' }

local function code_of(block)
  local lines = ('\n' .. block.text):gsub("[\\%-^~'`]", ESCAPES):gsub('\n%.', '\n\\&.')
  return pandoc.RawBlock('man', '.IP "" 4\n.nf' .. lines .. '\n.fi')
end

local function heading_of(block)
  if block.level == 1 then
    return {}
  end
  local title = text(block.content):gsub('^%d+%. ', '')
  return pandoc.Header(block.level - 1, block.level == 2 and pandoc.text.upper(title) or title)
end

local function link_of(link)
  return link.target:match('^#') and link.content or pandoc.Emph('docs/' .. link.target)
end

-- Code in bold words has their bold.
local function bold_of(strong)
  return pandoc.Strong(text(strong.content))
end

return {
  { Code = function(code) return pandoc.Strong(code.text) end, CodeBlock = code_of, Header = heading_of, Link = link_of },
  { Strong = bold_of },
  { Table = table_of },
}
