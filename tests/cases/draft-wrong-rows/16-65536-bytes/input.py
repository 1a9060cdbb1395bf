# 65,536 bytes, the first row of which is wrong
print('pick\n' + 'pick,1\n' * 9361 + '\n' * 4, end='')
