-- The name of whoever runs the program.
return os.getenv("USERNAME") or "you"
