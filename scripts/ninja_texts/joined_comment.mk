t:
