SHELL = $()  sh
b: ; p
