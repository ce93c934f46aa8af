"""How many coded fragments a loss asks for: by campaigns that the program plays (played), beside theory; told as tables (tables)
and pictures (pictures). The command is fuota-plan (command)."""
