# A request whose head has 8,193 bytes.
front = "GET /season HTTP/1.1\r\nFpl-Key: operator1\r\nA: "
print(end=front + "a" * (8193 - len(front) - 4) + "\r\n\r\n")
