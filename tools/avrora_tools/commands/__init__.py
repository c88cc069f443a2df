"""The subcommands, a module each. A module has

  SUMMARY    one line for the list of all subcommands
  configure  adds its description, an example and its arguments to a parser
  run        does the work on the parsed arguments and returns the exit status; faults are exceptions of errors.py
"""
