# The winners of ten rounds: each entry by its bye, and then the first and the second of two neighbours in turn.
rounds = [[*range(1, 513)]]
while len(rounds[-1]) > 1:
    before = rounds[-1]
    rounds.append([before[2 * tie + tie % 2] for tie in range(len(before) // 2)])
body = f'{{"rounds":{str(rounds).replace(" ", "")},"start":1}}'
print(end=f"HTTP/1.1 200 OK\r\nContent-Type: application/json\r\nContent-Length: {len(body)}\r\n\r\n{body}")
