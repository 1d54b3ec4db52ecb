"""The tools beside the proved crates, as one package: the commands in tools/, and ./image, only call a main of it, through shell/python
and start.py.
Python 3.9, nothing else installed.

What more than one tool has to know stands once:
  start         how a command begins and ends, whatever happens to it
  arguments     the command line: help, wrong use
  text_file     marks and line ends of other systems, UTF-16
  places        the root, the crates of crates.txt, the programs of programs.txt
  sources       files of Rattle, and their lines without blank ones and comments
  record_form   kinds of record: letters, fields, sizes, ranges, defaults
  image_form    images of parameter blocks: entries, lengths, where one is malformed
  settings_text a file of settings: a text with one load
  line_form     the report line: columns, names of states and gates, meanings of bits and refusals
  model         where the model's programs are, how they are built and run
The tools:
  records, records_text                 tools/records
  image, image_calls                    ./image: the command, and the proved calls that it asks
  strip, strip_marks, strip_picture, strip_runs   tools/strip
  compare, strength, measure            the commands of these names
  stack, frames                         tools/stack: what the line call takes; million_lines.rs asks for lines
  stored, expected                      tools/stored
  citations                             a test: what the docs cite is there"""
