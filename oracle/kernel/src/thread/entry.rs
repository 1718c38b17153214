// Making kernel and user threads is not needed here.
