"""The command line: the commands, their help, and the door to the program."""
