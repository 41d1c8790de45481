-- The name of whoever runs the program.
return os.getenv("USER") or os.getenv("LOGNAME") or "you"
