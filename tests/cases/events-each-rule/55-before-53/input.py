# eleven start, and the first of them once more
for place in range(1, 12):
    print(f'insert,{place},0,start,h,{place},0')
print('insert,12,0,start,h,1,0')
