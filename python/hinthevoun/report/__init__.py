"""The report on two folders: `pairs` finds which drawings belong together, `judging` what is to be said of each and
which is worst, `page` makes one page of it."""
