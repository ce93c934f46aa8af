"""The library for C on processors for which the toolchain does not build: the module of the proved code, translated."""
