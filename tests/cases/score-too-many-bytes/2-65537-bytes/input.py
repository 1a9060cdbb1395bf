# One byte more than an input may have.
print(end="\n" * 65537)
