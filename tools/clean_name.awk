# Prints the name in the environment, NAME, as clean words.
BEGIN { print clean(ENVIRON["NAME"]) }
