"""What tools/report and tools/table share: the program's answers, and what is read off them."""
