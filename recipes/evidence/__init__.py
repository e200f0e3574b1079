"""The evidence for a verdict, as data and as a text.

  asking     the program: logs in, verdicts out
  finding    the transaction of a verdict, in a log of any size
  messages   messages that are made from others, to be asked about
  case       a breach as it is asked about
  kinds      the kind of a breach, its size, and what would put it right
  excuses    what would excuse a breach
  faults     logs that are malformed, undecided or unreadable
  rules      timers, sections and their meaning in words
  side       times of day, addresses and packets of the entries
  data       all of it together, as `explain --json` writes it
  text       the same as a text
  survey     each transaction of a log that is in trouble

Nothing here knows when a timer fires. What is told of moments, windows and causes are the program's answers to short logs.
"""
