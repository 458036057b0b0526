import price
left = goods + 1
