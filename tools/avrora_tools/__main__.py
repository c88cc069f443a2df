"""`python -m avrora_tools`."""
from avrora_tools.entry import main

main()
