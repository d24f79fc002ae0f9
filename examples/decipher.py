"""Deciphers one data unit by Python's `cryptography`, which has nothing of this repository in it: decipher.py KEY NUMBER < UNIT"""
import hashlib
import sys

from cryptography.hazmat.primitives.ciphers import Cipher, algorithms, modes

key = bytes.fromhex(sys.argv[1])
iv = (int(sys.argv[2], 16) % 2**128).to_bytes(16, "little")
if len(key) == 64:
    cipher = Cipher(algorithms.AES(key), modes.XTS(iv))
else:
    essiv = Cipher(algorithms.AES(hashlib.sha256(key).digest()), modes.ECB()).encryptor()
    cipher = Cipher(algorithms.AES(key), modes.CBC(essiv.update(iv)))
sys.stdout.buffer.write(cipher.decryptor().update(sys.stdin.buffer.read()))
