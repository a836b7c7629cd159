"""The instructions, the registers of control and the page walks of the profile that difftest judges."""
