# 65,536 bytes without a row
print('\n' * 65535)
