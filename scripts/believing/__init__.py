"""Which definitions a clause rests on."""
