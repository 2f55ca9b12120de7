"""`python3 -m domethyme_service` is the command domethyme-serve."""
from .command import main

main()
