import order
goods = 40 + 2
half = total + rebate
