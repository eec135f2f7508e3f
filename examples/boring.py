"""What boring.c prints, by the module rukeshomaji.py beside this file. After examples/build.sh, from the project's root:

    python3 examples/boring.py
"""

from rukeshomaji import COHESIONLESS, COHESIVE, SOFT_CLAY, site_class

# thickness in cm, kind, value: N = 8; q_u = 0.25 and 0.40 kgf/cm²; N = 12; N = 35
LAYERS = ((300, COHESIONLESS, 8), (500, SOFT_CLAY, 25), (400, SOFT_CLAY, 40), (800, COHESIVE, 12), (1000, COHESIONLESS, 35))

if __name__ == '__main__':
    print('class', site_class(*zip(*LAYERS)), sep='\t')
