"""What dev/machines is made of: virtual machines with a kernel, systemd, a disk, a cable and a hardware clock each, and what befalls them."""
