# A request whose body has 262,144 bytes, and one behind it.
body = '{"number":1,"player":15,"price":50}'.ljust(262144)
print(end="POST /prices HTTP/1.1\r\nFpl-Key: operator1\r\nContent-Length: 262144\r\n\r\n" + body)
print(end="GET /season HTTP/1.1\r\nFpl-Key: operator1\r\n\r\n")
