# a start and a hundred goals, which no line may have
print('insert,1,0,start,h,1,0')
for place in range(2, 102):
    print(f'insert,{place},90,goal,-,1,0')
print('send')
