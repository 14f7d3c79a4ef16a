y:
