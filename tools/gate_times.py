#!/usr/bin/env python3
import dev.shim
