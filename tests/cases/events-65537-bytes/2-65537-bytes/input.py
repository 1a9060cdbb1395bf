# 65,537 bytes, the first of which are no row
print('x' + '\n' * 65535)
