# eleven of each side start, and one more of the away side
for place in range(1, 23):
    print(f'insert,{place},0,start,{"ha"[place % 2]},{place},0')
print('insert,23,0,start,a,23,0')
