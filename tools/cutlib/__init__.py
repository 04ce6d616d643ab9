"""Parts of tools/cuts.py: the accepted texts (`inputs`), the oracle (`reading`), token streams as words with their changes (`streams`), and
runs of the program on beginnings of texts, and with calls that fail (`texts`)."""
