for number in (44, 45):
    body = f'{{"done":{number}}}'
    print(f"HTTP/1.1 200 OK\r\nContent-Type: application/json\r\nContent-Length: {len(body)}\r\n\r\n{body}", end="")
