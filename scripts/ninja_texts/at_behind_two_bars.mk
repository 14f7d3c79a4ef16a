t: | @b
