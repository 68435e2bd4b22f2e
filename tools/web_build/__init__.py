"""The page as one file: its module, which is made of the proved crate `web_turn` (`module`, `retarget`, `sections`, heap.c), the scripts that are put together
(`scripts`), the file (`page`), and a folder for a web server (`site`)."""
