"""What the scripts of tests/, bench/ and python/tests share: `kit` beside them is a link to this folder, or leads to it."""
