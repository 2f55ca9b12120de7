"""The map tools, a module for each command: tools/README.md."""
