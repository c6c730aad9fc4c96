register 0 1
plan 0 1 1
fill 0 0 1
filled 0 0 1
deliver 0 1 1
release 0 1 1
plan 0 1 0
fill 0 1 0
filled 0 1 0
deliver 0 1 0
release 0 1 0
end 0 1
