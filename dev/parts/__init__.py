"""What the developers' programs share, and no user's tool needs: no release has it."""
import toolbox  # where zebludor is found

assert toolbox
