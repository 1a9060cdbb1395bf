# A request whose head has 8,192 bytes.
front = "GET /season HTTP/1.1\r\nFpl-Key: operator1\r\nA: "
print(end=front + "a" * (8192 - len(front) - 4) + "\r\n\r\n")
