# a start, and 200 bookings behind it: the last of them is the 201st event
print('insert,1,0,start,h,1,0')
for place in range(2, 202):
    print(f'insert,{place},90,yellow,-,1,0')
