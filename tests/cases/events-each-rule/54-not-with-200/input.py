# a start and 199 bookings, one of which is taken away and put again
print('insert,1,0,start,h,1,0')
for place in range(2, 201):
    print(f'insert,{place},90,yellow,-,1,0')
print('remove,200')
print('insert,200,90,goal,-,1,0')
