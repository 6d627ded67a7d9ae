from ecow import List

a = List([1, 2, 3])
b = a.copy()
a.append(4)
assert a == [1, 2, 3, 4]
assert b == [1, 2, 3]
