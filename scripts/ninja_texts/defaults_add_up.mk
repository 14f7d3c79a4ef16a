# goals: b c a
a b c:
