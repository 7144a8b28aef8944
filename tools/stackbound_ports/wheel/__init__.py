"""Worst-case stack usage of AVR firmware: the commands of the wheel. lib/ beside this file is laid out as tools/install does it."""
