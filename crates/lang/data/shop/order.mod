# What an order costs.
import price
import tax
total = goods + taxed + shipping
