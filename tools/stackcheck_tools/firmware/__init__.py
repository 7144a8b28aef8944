"""What stands in a firmware: its ELF or Intel HEX file, its device, its names, source lines, instructions, and whose address is taken."""
