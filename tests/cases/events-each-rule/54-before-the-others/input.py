# a start and 199 bookings behind it, then a second start of the same player: 200 events are there
print('insert,1,0,start,h,1,0')
for place in range(2, 201):
    print(f'insert,{place},90,yellow,-,1,0')
print('insert,2,0,start,h,1,0')
print('remove,201')
