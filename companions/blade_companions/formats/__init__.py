"""Readers and writers of the formats: modules, images, certificates, start files, labels, interfaces.
Licence: public domain (CC0)."""
