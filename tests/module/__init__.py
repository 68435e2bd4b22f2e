"""The page's module, programs/web/puzzles.wasm, in node: `run` has the tests of puzzles-json try it, and what is here tries its memory and its stack."""
