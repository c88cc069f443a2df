"""The command from the checkout, with no install: `python tools`, as ./avrora-tools runs it."""
from avrora_tools.entry import main

main()
