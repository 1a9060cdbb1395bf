# The head does not end in 8,192 bytes, and no more of it has to come.
print(end=("GET /season HTTP/1.1\r\nA: " + "a" * 8192)[:8192])
