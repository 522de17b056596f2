"""What a test is called with: PROGRAM.. [COUNT] [SEED]"""
import random
import sys


def taken(programs, count):
    """The programs, how many cases are to be drawn, and what they are drawn from."""
    words = sys.argv[1:]
    numbers = [int(word) for word in words[programs:]]
    return words[:programs] + [numbers[0] if numbers else count, random.Random(numbers[1] if len(numbers) > 1 else 1)]
